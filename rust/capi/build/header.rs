// SPDX-License-Identifier: Apache-2.0
// SPDX-FileCopyrightText: Copyright the Vortex contributors

//! What the header of the library declares: the version of the interface, and the functions.

/// A function of the header.
pub struct Function {
    name: String,
    // Each parameter as Rust declares it: its name and its type.
    parameters: Vec<(String, &'static str)>,
    result: &'static str,
}

impl Function {
    /// Returns the line of C that gives the function another name.
    pub fn renamed(&self) -> String {
        format!("#define {0} layer_{0}\n", self.name)
    }

    /// Returns a line with the name of the function.
    pub fn listed(&self) -> String {
        format!("{}\n", self.name)
    }

    /// Returns the function in Rust, which calls that of the layer.
    pub fn in_rust(&self) -> String {
        let Function { name, result, .. } = self;
        let declared = self.parameters.iter();
        let declared = declared.map(|(name, kind)| format!("{name}: {kind}"));
        let declared = declared.collect::<Vec<_>>().join(", ");
        let given = self.parameters.iter().map(|(name, _)| name.as_str());
        let given = given.collect::<Vec<_>>().join(", ");
        format!(
            "#[unsafe(no_mangle)]
pub unsafe extern \"C\" fn {name}({declared}) -> {result} {{
    unsafe extern \"C\" {{
        fn layer_{name}({declared}) -> {result};
    }}
    // SAFETY: the caller meets the conditions of the header.
    unsafe {{ layer_{name}({given}) }}
}}\n"
        )
    }
}

/// Returns the version of the interface.
///
/// # Errors
///
/// The header doesn't say it.
pub fn abi_version(header: &str) -> Result<&str, String> {
    let line = "#define VLT_ABI_VERSION ";
    let found = header.lines().find_map(|one| one.strip_prefix(line));
    let found = found.ok_or("the header has no version")?;
    Ok(found.trim_end_matches('u'))
}

/// Returns the functions that the header declares. Each declaration begins at the begin of a line.
///
/// # Errors
///
/// A parameter has a type that isn't known.
pub fn functions_in(header: &str) -> Result<Vec<Function>, String> {
    let mut functions = Vec::new();
    let mut lines = header.lines();
    while let Some(line) = lines.next() {
        let line = line.strip_prefix("VLT_MUST_USE ").unwrap_or(line);
        let Some((head, first)) = line.split_once('(') else {
            continue;
        };
        let Some((name, result)) = declared(head).filter(|(name, _)| name.starts_with("vlt_"))
        else {
            continue;
        };
        let mut list = first.to_owned();
        while !list.ends_with(");") {
            list.push_str(lines.next().ok_or("the header ends in a declaration")?);
        }
        let all = list.trim_end_matches(");").split(',').map(str::trim);
        let parameters = all.filter(|one| *one != "void").map(|one| {
            declared(one).ok_or_else(|| format!("{name}: the type of `{one}` isn't known"))
        });
        functions.push(Function {
            parameters: parameters.collect::<Result<_, _>>()?,
            name,
            result,
        });
    }
    Ok(functions)
}

// The name and the type of a declaration, for example of `const vlt_dtype *dtype`.
fn declared(text: &str) -> Option<(String, &'static str)> {
    let (kind, name) = text.rsplit_once([' ', '*'])?;
    let is_pointer = text.contains('*') && !text.starts_with([' ', '/']);
    let in_rust = match kind {
        _ if is_pointer => "*mut u8",
        "bool" => "bool",
        "int8_t" => "i8",
        "size_t" => "usize",
        "uint8_t" => "u8",
        "uint32_t" | "vlt_result" => "u32",
        "void" => "()",
        _ => return None,
    };
    Some((name.to_owned(), in_rust))
}
