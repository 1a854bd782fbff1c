//! The lines that show a step and its answer.

use crate::directories::Reply;
use crate::jobs::{Answer, Call, Step};
use crate::output::Output;
use crate::place::Place;

pub fn print_step(output: &mut Output, job: u64, step: &Step) {
    output.number(job);
    print_call(output, step.call);
    match step.reply {
        Reply::Ok => output.text(b" ok\n"),
        Reply::Exists => output.text(b" exists\n"),
        Reply::NotFound => output.text(b" notfound\n"),
    }
    if let Some(answer) = step.answer {
        output.number(job);
        output.text(b" answer ");
        print_answer(output, answer);
        output.text(b"\n");
    }
}

fn print_call(output: &mut Output, call: Call) {
    match call {
        Call::Create => output.text(b" create"),
        Call::Append(count) => {
            output.text(b" append ");
            output.number(count);
        }
        Call::Link => output.text(b" link"),
        Call::Rename => output.text(b" rename"),
        Call::Unlink => output.text(b" unlink"),
        Call::List(Place::Tmp) => output.text(b" list tmp"),
        Call::List(Place::New) => output.text(b" list new"),
        Call::List(Place::Cur) => output.text(b" list cur"),
    }
}

fn print_answer(output: &mut Output, answer: Answer) {
    match answer {
        Answer::Delivered => output.text(b"delivered"),
        Answer::Flags(flags) => {
            output.text(b"flags ");
            output.flags(flags);
        }
        Answer::Moved => output.text(b"moved"),
        Answer::Copied => output.text(b"copied"),
        Answer::Expunged => output.text(b"expunged"),
        Answer::Cleaned(count) => {
            output.text(b"cleaned ");
            output.number(count);
        }
        Answer::NotThere => output.text(b"notthere"),
        Answer::NotTrashed => output.text(b"nottrashed"),
        Answer::OtherInfo => output.text(b"otherinfo"),
        Answer::Lost => output.text(b"lost"),
        Answer::TimedOut => output.text(b"timedout"),
        Answer::TmpGone => output.text(b"tmpgone"),
        Answer::NameTaken => output.text(b"nametaken"),
    }
}
