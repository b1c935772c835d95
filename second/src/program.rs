//! The programs that a server has run, each by the rules of its time and in the
//! forms of its time. Request 6 of paper 02 changed the forms: since then they carry
//! the time of execution.

use crate::rule::Rules;

/// What stands in executed records, result packets, image entries and checkpoint
/// entries.
#[derive(Clone, Copy, PartialEq, Eq, Hash, Debug, Default)]
pub enum Form {
    /// No time of execution; read as time 0.
    Untimed,
    #[default]
    Timed,
}

impl Form {
    /// The time that is kept of a command executed at this heard time.
    pub fn time(self, heard: u32) -> u32 {
        match self {
            Form::Untimed => 0,
            Form::Timed => heard,
        }
    }
}

/// The rules that a program executes by and the form that it writes. Each program
/// reads its own form and the earlier one.
#[derive(Clone, Copy, PartialEq, Eq, Hash, Debug, Default)]
pub struct Program {
    pub rules: Rules,
    pub form: Form,
}

impl Program {
    /// Before request 1 of paper 02.
    pub const FIRST: Program = Program::untimed(Rules::OLD);
    /// From request 1 on, before request 4.
    pub const SECOND: Program = Program::untimed(Rules::BETWEEN);
    /// From request 4 on, before request 6.
    pub const THIRD: Program = Program::untimed(Rules::NEAREST);
    /// From request 6 on, before request 7.
    pub const FOURTH: Program = Program::timed(Rules::NEAREST);
    pub const TODAY: Program = Program::timed(Rules::TODAY);
    /// In the order of time.
    pub const ALL: [Program; 5] = [
        Program::FIRST,
        Program::SECOND,
        Program::THIRD,
        Program::FOURTH,
        Program::TODAY,
    ];

    const fn untimed(rules: Rules) -> Program {
        let form = Form::Untimed;
        Program { rules, form }
    }

    const fn timed(rules: Rules) -> Program {
        let form = Form::Timed;
        Program { rules, form }
    }

    /// Whether the program reads what is written in this form.
    pub fn reads(self, form: Form) -> bool {
        self.form == Form::Timed || form == Form::Untimed
    }
}
