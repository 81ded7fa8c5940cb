//! Calls of any function of the header, made up from a seed by what its parameters are.

use super::caller::Stack;
use super::functions::{cut, Function};
use super::lent::Argument;
use super::values::{Source, Values};
use joyce_host::fuzz::Rng;
use joyce_host::header::Type;

/// Calls of each function.
const CALLS: usize = 3_000;
/// Any seed; always the same, so that two runs give the same numbers.
const SEED: u64 = 1;

/// The most bytes of stack that a call of the function uses.
pub fn measure(stack: &mut Stack, function: &Function, source: &Source) -> Result<usize, String> {
    let mut arguments: Vec<_> = function.parameters.iter().map(|&(kind, _)| Argument::new(kind)).collect();
    let mut rng = Rng::new(SEED);
    let (mut most, mut accepted) = (0, 0);
    for call in 0..CALLS {
        let mut values = Values::new(source, &mut rng, takes_kind(function), call);
        set(&mut arguments, function, &mut values);
        // SAFETY: the arguments are of the types that the header has; what they lend lives, none overlaps another.
        let measured = unsafe { stack.measure(function, || Ok(arguments.iter_mut().map(Argument::lend).collect()))? };
        most = most.max(measured.used);
        accepted += function.accepted(measured.reply) as u32;
    }
    if accepted == 0 {
        return Err(none_accepted(function, source));
    }
    Ok(most)
}

fn takes_kind(function: &Function) -> bool {
    function.parameters.iter().any(|&(_, name)| name == "kind")
}

/// Gives the arguments of the next call their values.
fn set(arguments: &mut [Argument], function: &Function, values: &mut Values) {
    for (at, &(kind, name)) in function.parameters.iter().enumerate() {
        match kind {
            Type::Board | Type::ConstBoard => arguments[at].board = values.board(),
            Type::Bytes | Type::ConstBytes => set_bytes(&mut arguments[at], name, values),
            _ if is_length(function, at) => arguments[at].word = arguments[at - 1].length(),
            _ => arguments[at].word = cut(kind, number(name, values)),
        }
    }
}

/// Whether a parameter is the length of the one before. The header has one behind all bytes, or it is not read.
fn is_length(function: &Function, at: usize) -> bool {
    at > 0 && matches!(function.parameters[at - 1].0, Type::Bytes | Type::ConstBytes)
}

fn number(name: &str, values: &mut Values) -> u64 {
    let fitting = if values.wrong() { None } else { values.number(name) };
    fitting.unwrap_or_else(|| values.any_number())
}

fn set_bytes(argument: &mut Argument, name: &str, values: &mut Values) {
    argument.from = values.shift();
    argument.bytes.clear();
    argument.bytes.resize(argument.from, 0);
    if values.wrong() || !values.bytes(name, &mut argument.bytes) {
        values.any_bytes(&mut argument.bytes);
    }
}

fn none_accepted(function: &Function, source: &Source) -> String {
    let (mut rng, mut bytes) = (Rng::new(SEED), Vec::new());
    let mut values = Values::new(source, &mut rng, takes_kind(function), CALLS);
    let mut unknown = Vec::new();
    for (at, &(kind, name)) in function.parameters.iter().enumerate() {
        let known = match kind {
            Type::Board | Type::ConstBoard => true,
            Type::Bytes | Type::ConstBytes => values.bytes(name, &mut bytes),
            _ => is_length(function, at) || values.number(name).is_some(),
        };
        if !known {
            unknown.push(name);
        }
    }
    let why = match unknown.as_slice() {
        [] => "all its parameters are known by name, but their values do not fit".to_string(),
        unknown => format!("parameters that are not known by name: {}", unknown.join(", ")),
    };
    format!(
        "{}: none of {CALLS} calls was accepted, so only refusals were measured; {why} (host/src/tool/stack/values.rs)",
        function.name
    )
}

#[cfg(test)]
mod tests {
    use super::super::functions::tests::address;
    use super::*;
    use joyce_host::header::Type::{Bytes, Unsigned};

    extern "C" fn refuses(_moon: u32) -> u64 {
        1 << 32
    }

    /// Writes over what it is lent, and gives how many bytes it had written before: any, if they were not made good again.
    extern "C" fn writes(bytes: *mut u8, length: u64) -> u64 {
        // SAFETY: as many bytes are lent.
        let bytes = unsafe { std::slice::from_raw_parts_mut(bytes, length as usize) };
        let before = bytes.iter().filter(|&&byte| byte == 0xEE).count() as u64;
        bytes.fill(0xEE);
        before << 40
    }

    fn measured(parameters: &'static [(Type, &'static str)], address: unsafe extern "C" fn()) -> Result<usize, String> {
        let function = Function { name: "joyce_x", result: Unsigned(64), parameters, address };
        measure(&mut Stack::new(), &function, &Source::new(&mut Rng::new(2)))
    }

    #[test]
    fn refusals_alone_are_not_a_measurement() {
        let address = address(refuses as *const ());
        let error = measured(&[(Unsigned(32), "moon"), (Unsigned(8), "rate")], address).expect_err("refused");
        assert!(error.contains("joyce_x: none of 3000 calls was accepted"), "{error}");
        assert!(error.contains("not known by name: moon (host/src/tool/stack/values.rs)"), "{error}");
        let error = measured(&[(Unsigned(32), "n")], address).expect_err("refused");
        assert!(error.contains("all its parameters are known by name"), "{error}");
    }

    /// A function with a parameter of an unknown name is called all the same, on equal memory both times.
    #[test]
    fn unknown_names_go_by_their_type() {
        let address = address(writes as *const ());
        assert!(measured(&[(Bytes, "moon"), (Unsigned(64), "moon_len")], address).expect("measured") >= 8);
    }
}
