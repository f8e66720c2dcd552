//! Compares what a program prints for one input with the second program's text.

use crate::difference::Difference;
use crate::reduce;
use crate::replay::Printed;

/// The difference is that of the smallest input found, which `words` tells.
pub fn compare(
    input: &[u8],
    program: impl Fn(&[u8]) -> Printed,
    expected: impl Fn(&[u8]) -> String,
    words: impl Fn(&[u8]) -> String,
) -> Result<(), Difference> {
    let differs = |input: &[u8]| !program(input).agrees(expected(input).as_bytes());
    if !differs(input) {
        return Ok(());
    }
    let smallest = reduce::schedule(input, differs);
    let printed = program(&smallest);
    let text = String::from_utf8_lossy(&printed.text);
    Err(Difference {
        input: words(&smallest),
        proved: format!("{text}({})", printed.status),
        second: expected(&smallest),
    })
}
