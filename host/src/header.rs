//! The functions of include/joyce.h, read from its text. The build makes a table of them (build.rs), so that `joyce stack`
//! leaves none out.

/// What a call must know of a type.
#[derive(Clone, Copy, PartialEq, Eq, Debug)]
pub enum Type {
    /// Of a result only.
    Void,
    /// A number of so many bits.
    Unsigned(u32),
    Signed(u32),
    /// The address of a record.
    Board,
    ConstBoard,
    /// The address of bytes; how many they are is the next parameter.
    Bytes,
    ConstBytes,
}

#[derive(PartialEq, Eq, Debug)]
pub struct Prototype {
    pub name: String,
    pub result: Type,
    pub parameters: Vec<(Type, String)>,
}

/// What begins so is no function of the library: a type, numbers, a check, a function that is the caller's own code.
const OTHERS: [&str; 4] = ["typedef ", "enum {", "JOYCE_ASSERT(", "static "];

/// The prototypes of a header, in order. What is none, and not known to be something else, is an error: nothing is passed over.
pub fn prototypes(header: &str) -> Result<Vec<Prototype>, String> {
    let declarations = declarations(&without_directives(&without_comments(header)?))?;
    let ours = declarations.iter().filter(|text| !OTHERS.iter().any(|other| text.starts_with(other)));
    ours.map(|text| prototype(text)).collect()
}

fn without_comments(text: &str) -> Result<String, String> {
    let (mut kept, mut rest) = (String::new(), text);
    while let Some(at) = rest.find("/*").into_iter().chain(rest.find("//")).min() {
        // The end of a line stays, since a directive ends there too.
        let (end, skipped) = if rest[at..].starts_with("/*") { ("*/", 2) } else { ("\n", 0) };
        let length = rest[at + 2..].find(end).ok_or("a comment without an end")?;
        kept.push_str(&rest[..at]);
        kept.push(' ');
        rest = &rest[at + 2 + length + skipped..];
    }
    kept.push_str(rest);
    Ok(kept)
}

/// Leaves out directives, and what only a C++ compiler sees.
fn without_directives(text: &str) -> String {
    let (mut kept, mut cplusplus) = (String::new(), false);
    for line in text.replace("\\\n", " ").lines() {
        match line.trim_start().strip_prefix('#').map(str::trim) {
            Some("ifdef __cplusplus") => cplusplus = true,
            Some("else" | "endif") => cplusplus = false,
            Some(_) => {}
            None if cplusplus => {}
            None => kept.extend([line, "\n"]),
        }
    }
    kept
}

/// Each declaration in one line, with single spaces. One ends at a semicolon outside of braces, or with a function's body.
fn declarations(text: &str) -> Result<Vec<String>, String> {
    let (mut found, mut current, mut depth) = (Vec::new(), String::new(), 0);
    for c in text.chars() {
        depth += (c == '{') as i32 - (c == '}') as i32;
        let body_ends = c == '}' && depth == 0 && current.trim_start().starts_with("static ");
        if body_ends || (c == ';' && depth == 0) {
            found.push(one_line(&current));
            current.clear();
        } else {
            current.push(c);
        }
    }
    match one_line(&current) {
        rest if rest.is_empty() => Ok(found.into_iter().filter(|text| !text.is_empty()).collect()),
        rest => Err(format!("a declaration without an end: {rest}")),
    }
}

fn one_line(text: &str) -> String {
    text.split_whitespace().collect::<Vec<_>>().join(" ")
}

fn prototype(text: &str) -> Result<Prototype, String> {
    let unreadable = || format!("not known to be something else, and not read as a function: {text}");
    let (head, rest) = text.split_once('(').ok_or_else(unreadable)?;
    let list = rest.strip_suffix(')').ok_or_else(unreadable)?;
    let (result, name) = typed(head).filter(|(_, name)| name.starts_with("joyce_")).ok_or_else(unreadable)?;
    if !matches!(result, Type::Void | Type::Unsigned(_) | Type::Signed(_)) {
        return Err(format!("{name}: a result of a type that is not known here: {head}"));
    }
    let parameters = match list.trim() {
        "void" => Vec::new(),
        list => list.split(',').map(|text| parameter(&name, text)).collect::<Result<_, _>>()?,
    };
    lengths_follow(&name, &parameters)?;
    Ok(Prototype { name, result, parameters })
}

fn parameter(function: &str, text: &str) -> Result<(Type, String), String> {
    let unknown = || format!("{function}: a parameter of a type that is not known here: {}", text.trim());
    typed(text).filter(|(kind, _)| *kind != Type::Void).ok_or_else(unknown)
}

/// Bytes without a length could not be lent.
fn lengths_follow(function: &str, parameters: &[(Type, String)]) -> Result<(), String> {
    for (at, (kind, name)) in parameters.iter().enumerate() {
        let length = (Type::Unsigned(64), format!("{name}_len"));
        if matches!(kind, Type::Bytes | Type::ConstBytes) && parameters.get(at + 1) != Some(&length) {
            return Err(format!("{function}: {name} is not followed by its length, size_t {name}_len"));
        }
    }
    Ok(())
}

/// A type and the name behind it.
fn typed(text: &str) -> Option<(Type, String)> {
    let spaced = text.replace('*', " * ");
    let (kind, name) = spaced.trim().rsplit_once(char::is_whitespace)?;
    let plain = name.chars().all(|c| c.is_ascii_alphanumeric() || c == '_');
    type_named(&one_line(kind)).filter(|_| plain).map(|kind| (kind, name.to_string()))
}

fn type_named(name: &str) -> Option<Type> {
    Some(match name {
        "void" => Type::Void,
        "uint8_t" => Type::Unsigned(8),
        "uint16_t" => Type::Unsigned(16),
        "uint32_t" => Type::Unsigned(32),
        "uint64_t" | "size_t" => Type::Unsigned(64),
        "int8_t" => Type::Signed(8),
        "int16_t" => Type::Signed(16),
        "int32_t" | "int" => Type::Signed(32),
        "int64_t" => Type::Signed(64),
        "joyce_board *" => Type::Board,
        "const joyce_board *" => Type::ConstBoard,
        "uint8_t *" => Type::Bytes,
        "const uint8_t *" => Type::ConstBytes,
        _ => return None,
    })
}

#[cfg(test)]
mod tests {
    use super::Type::*;
    use super::*;

    const HEADER: &str = "
/* uint8_t joyce_not(void); */
#ifdef __cplusplus
#define CHECK(what) static_assert(what, \\
                                  #what)
extern \"C\" {
#endif
#define JOYCE_LINE 90u /* over
two lines */
enum { JOYCE_ONE = 1 };
typedef struct { uint8_t a; } joyce_a;
JOYCE_ASSERT(sizeof(joyce_a) == 1);
uint32_t joyce_version(void); // uint8_t joyce_not(void);
int8_t joyce_two(joyce_board *board, /* any */ uint16_t n,
                 const uint8_t *ram, size_t ram_len);
static inline uint8_t joyce_part(uint64_t reply) { return (uint8_t)reply; }
static inline uint8_t joyce_inner(uint64_t reply) {
    if (reply) { return 1; }
    return 0;
}
void joyce_three(const joyce_board * board, uint8_t* out, size_t out_len);
#ifdef __cplusplus
}
#endif
";

    #[test]
    fn prototypes_are_read_and_the_rest_is_known() {
        let expected = [
            ("joyce_version", Unsigned(32), vec![]),
            (
                "joyce_two",
                Signed(8),
                vec![(Board, "board"), (Unsigned(16), "n"), (ConstBytes, "ram"), (Unsigned(64), "ram_len")],
            ),
            ("joyce_three", Void, vec![(ConstBoard, "board"), (Bytes, "out"), (Unsigned(64), "out_len")]),
        ];
        let expected = expected.map(|(name, result, parameters)| Prototype {
            name: name.to_string(),
            result,
            parameters: parameters.into_iter().map(|(kind, name)| (kind, name.to_string())).collect(),
        });
        assert_eq!(prototypes(HEADER).expect("a header"), expected);
    }

    #[test]
    fn what_is_not_known_is_refused() {
        for (text, error) in [
            ("uint64_t joyce_x(float f);", "joyce_x: a parameter of a type that is not known here: float f"),
            ("uint64_t joyce_x(uint8_t a, uint16_t *b);", "not known here: uint16_t *b"),
            ("uint64_t joyce_x(uint8_t f[4]);", "not known here: uint8_t f[4]"),
            ("uint64_t joyce_x(uint8_t (*f)(void));", "not known here: uint8_t (*f)(void)"),
            ("uint64_t joyce_x(uint8_t);", "not known here: uint8_t"),
            ("uint64_t joyce_x();", "not known here: "),
            ("uint64_t joyce_x(void x);", "not known here: void x"),
            ("uint64_t joyce_x(uint8_t *ram);", "joyce_x: ram is not followed by its length, size_t ram_len"),
            ("uint64_t joyce_x(const uint8_t *a, size_t n);", "a is not followed by its length"),
            ("const uint8_t *joyce_x(void);", "joyce_x: a result of a type that is not known here"),
            ("joyce_sizes joyce_x(void);", "not read as a function: joyce_sizes joyce_x(void)"),
            ("uint8_t other(void);", "not read as a function"),
            ("extern uint8_t joyce_font[256];", "not read as a function"),
            ("inline uint8_t joyce_x(void) { return 1; }", "without an end"),
            ("uint8_t joyce_x(void)", "a declaration without an end: uint8_t joyce_x(void)"),
            ("extern \"C\" { uint8_t joyce_x(void); }", "without an end"),
            ("uint8_t joyce_x(void); /* and", "a comment without an end"),
        ] {
            let found = prototypes(text).expect_err(text);
            assert!(found.contains(error), "{text}: {found}");
        }
    }

    /// In the header itself a prototype is what starts a line with the type of a number.
    #[test]
    fn none_of_the_header_is_left_out() {
        let header = concat!(env!("CARGO_MANIFEST_DIR"), "/../include/joyce.h");
        let header = std::fs::read_to_string(header).expect("the header");
        let counted = header.lines().filter(|line| line.starts_with("uint") || line.starts_with("int")).count();
        let found = prototypes(&header).expect("a header that is read");
        assert_eq!(found.len(), counted);
        assert!(counted >= 18, "{counted} functions");
    }
}
