//! Why a text can't be read: a word that is none, or words in a wrong order.

use crate::types::Span;

/// What is told of it. The number is that of the product's refusal of the same
/// kind: 17 for a word, 18 for the order of words.
#[derive(Clone, Debug, PartialEq, Eq)]
pub struct Broken {
    pub number: u8,
    pub span: Span,
    pub rule: String,
    /// What to do; for the order of words none, where it is found out what fits.
    pub remedy: Option<String>,
    /// Another place that it has to do with, and what is to be seen there.
    pub other: Option<(Span, String)>,
}

/// It is met seldom, and handed through every part of the reader.
pub type Read<T> = Result<T, Box<Broken>>;

impl Broken {
    pub fn word(span: Span, rule: impl Into<String>, remedy: impl Into<String>) -> Box<Broken> {
        Box::new(Broken {
            number: 17,
            span,
            rule: rule.into(),
            remedy: Some(remedy.into()),
            other: None,
        })
    }

    pub fn order(span: Span, rule: impl Into<String>, remedy: Option<String>) -> Box<Broken> {
        Box::new(Broken {
            number: 18,
            span,
            rule: rule.into(),
            remedy,
            other: None,
        })
    }

    pub fn with(mut self: Box<Self>, span: Span, caption: impl Into<String>) -> Box<Broken> {
        self.other = Some((span, caption.into()));
        self
    }
}
