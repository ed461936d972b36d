//! The second text: lines of task name, one space, template name. Line ends of all systems and a byte order mark are accepted.

use crate::names::Space;
use crate::policy::{Name, Policy};
use crate::refusal::{Fault, Refusal, Text, Why, MARK};

struct Lines<'t> {
    text: &'t [u8],
    at: usize,
}

impl<'t> Lines<'t> {
    fn fault<T>(&self, expected: &'static str) -> Result<T, Refusal> {
        Err(Refusal::Text(Box::new(Fault {
            text: Text::Tasks,
            place: self.at + 1,
            why: Why::Expected(expected),
        })))
    }

    fn name(&mut self, expected: &'static str) -> Result<Name<'t>, Refusal> {
        let start = self.at;
        let length = self.text[start..].iter().take_while(|&&b| b > b' ').count();
        if length == 0 {
            return self.fault(expected);
        }
        self.at += length;
        Ok(Name {
            bytes: &self.text[start..self.at],
            text: Text::Tasks,
            place: start + 1,
        })
    }

    fn line(&mut self) -> Result<(Name<'t>, Name<'t>), Refusal> {
        let task = self.name("a task name")?;
        if self.text.get(self.at) != Some(&b' ') {
            return self.fault("a space and a template name");
        }
        self.at += 1;
        let template = self.name("a template name")?;
        self.end()?;
        Ok((task, template))
    }

    /// Reads the end of a line, with or without a carriage return, or the end of the text.
    fn end(&mut self) -> Result<(), Refusal> {
        let returned = self.text.get(self.at) == Some(&b'\r');
        self.at += usize::from(returned);
        match self.text.get(self.at) {
            Some(b'\n') => self.at += 1,
            None if !returned => {}
            _ if returned => return self.fault("a line feed after the carriage return"),
            _ => return self.fault("the end of the line"),
        }
        Ok(())
    }
}

pub(crate) fn read_tasks<'t>(text: &'t [u8], policy: &mut Policy<'t>) -> Result<(), Refusal> {
    let marked = text.starts_with(MARK);
    let at = if marked { MARK.len() } else { 0 };
    let mut lines = Lines { text, at };
    while lines.at < text.len() {
        let (task, template) = lines.line()?;
        let task = policy.declared(Space::Task, task);
        let template = policy.declared(Space::Template, template);
        policy.record(6, 0, task, template);
    }
    Ok(())
}
