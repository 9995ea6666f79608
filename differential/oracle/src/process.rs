//! A process of the original that answers from a list.
use crate::convert::{event, message};
use kairo_ecs_pdes::{ConservativeProcess, RemoteEvent};
use model::{Message, Reply};
use std::collections::VecDeque;
use std::thread::{self, ThreadId};

/// The next reply answers the next event; when there is none left, nothing is emitted.
#[derive(Debug, Default)]
pub struct Scripted {
    pub replies: VecDeque<Reply>,
    pub handled: Vec<Message>,
    /// The thread that the original started for each of these events.
    pub threads: Vec<ThreadId>,
}

impl Scripted {
    pub fn new(replies: Vec<Reply>) -> Self {
        Self {
            replies: replies.into(),
            handled: vec![],
            threads: vec![],
        }
    }
}

impl ConservativeProcess for Scripted {
    /// A failure unwinds as a panic does, and prints nothing.
    fn on_event(&mut self, given: &RemoteEvent) -> Vec<RemoteEvent> {
        self.handled.push(message(given));
        self.threads.push(thread::current().id());
        match self.replies.pop_front() {
            None => vec![],
            Some(Reply::Emits(messages)) => messages.iter().map(event).collect(),
            Some(Reply::Fails) => std::panic::resume_unwind(Box::new("scripted")),
        }
    }
}
