//! Stub of error.rs. `Validation`, `verify!`, `verify_continue!` and the two extension traits are the listed file's; the
//! errors that carry a report are written here with the cases that this index has.
use error_stack::Report;
use std::ops::ControlFlow;
use std::result;

#[derive(Debug, Clone, Copy, PartialEq, Eq)]
pub(crate) enum RuntimeError {
    IndexAccess,
    BufferPageAllocation,
}
pub(crate) type RuntimeResult<T> = result::Result<T, Report<RuntimeError>>;

#[derive(Debug)]
pub(crate) enum RuntimeOrFatalError {
    Runtime(Report<RuntimeError>),
}
pub(crate) type RuntimeOrFatalResult<T> = result::Result<T, RuntimeOrFatalError>;

impl From<Report<RuntimeError>> for RuntimeOrFatalError {
    fn from(report: Report<RuntimeError>) -> Self {
        Self::Runtime(report)
    }
}
impl<T> MultiDomainResultExt for RuntimeOrFatalResult<T> {
    fn attach(self, attachment: &'static str) -> Self {
        self.map_err(|RuntimeOrFatalError::Runtime(r)| RuntimeOrFatalError::Runtime(r.attach(attachment)))
    }
    fn attach_with<F: FnOnce() -> String>(self, attachment: F) -> Self {
        self.map_err(|RuntimeOrFatalError::Runtime(r)| RuntimeOrFatalError::Runtime(r.attach(attachment())))
    }
}
impl<T> RuntimeOrFatalResultExt for RuntimeOrFatalResult<T> {
    fn change_runtime_context(self, context: RuntimeError) -> Self {
        self.map_err(|RuntimeOrFatalError::Runtime(r)| RuntimeOrFatalError::Runtime(r.change_context(context)))
    }
}
include!(concat!(env!("ORACLE_LISTED"), "/error_traits.rs"));
include!(concat!(env!("ORACLE_LISTED"), "/error_validation.rs"));
