// SPDX-License-Identifier: Apache-2.0
// SPDX-FileCopyrightText: Copyright the Vortex contributors

//! The commands on sessions, and on messages of types and of paths.

use super::extensions::PLUGINS;
use super::prelude::*;
use crate::argument::Bytes;
use crate::line::Line;

pub const SESSIONS: &[Row] = rows! {
    ["session", "NAME new|register PLUGIN|allow_unknown|drop", "s register x.tag", "new makes the session with this name, register registers a plugin, allow_unknown makes the session keep extensions with unknown ids, and drop removes it; register and allow_unknown make the session too if there is none", "condition: at most 16 sessions; unknown: the session"] (|call, console| console.sessions.answer(call, CHANGES, &MAKES, change))
    ["sessions", "", "", "the names of the sessions, in the order in which they were made"] (|call, console| call.last().and_then(|()| call.say(Joined(" ", console.sessions.names()))))
    ["allows_unknown", "SESSION", "unknown,x.tag", "whether the session keeps extensions of unknown ids", "unknown: the session"] (session; => session.allows_unknown())
    ["registry", "SESSION ID", "x.tag,x.text x.text", "whether the session has a plugin under this id", "unknown: the session"] (session; id: ExtId => session.registry(id.as_str()))
    ["deserialize", "SESSION ID HEX T", "x.tag x.tag 0x4142 utf8", "the extension with this id and this storage type, and with the metadata that the session keeps when it reads these bytes", "MetadataRefused (22), ExtensionUnregistered (35); unknown: the session"] (session; id: ExtId, metadata: Bytes, storage: DType => session.deserialize(id.as_str(), &metadata.0, storage)?)
};

pub const MESSAGES: &[Row] = rows! {
    ["write", "T", "{a=list(i32?)}", "the message that describes the type"] (dtype: DType => dtype.try_to_proto()?)
    ["read", "SESSION MSG", "strict list { element_type { utf8 {} } nullable: true }", "the type that the session reads from the message", "MessageFault (24 to 35), the errors of decimals, maps and unions (1 to 4, 9 to 13, 15), MetadataRefused (22); unknown: the session"] (session; message: pb::DType => read(&message, session)?)
    ["normal", "SESSION MSG", r#"x.tag extension { id: "x.tag" storage_dtype { utf8 {} } metadata: "AB" }"#, "the message that write prints for the type that the session reads from this message", "MessageFault (24 to 35), the errors of decimals, maps and unions (1 to 4, 9 to 13, 15), MetadataRefused (22); unknown: the session"] (session; message: pb::DType => read(&message, session)?.try_to_proto()?)
    ["round_trip", "SESSION T", "strict x.y[0x](utf8)", "the type that the session reads from the message of T", "MetadataRefused (22), ExtensionUnregistered (35); unknown: the session"] (session; dtype: DType => DType::from_proto(&dtype.try_to_proto()?, session)?)
    ["read_eq", "SESSION MSG MSG", "strict utf8 {} utf8 { nullable: true }", "whether the session reads equal types from the two messages", "MessageFault (24 to 35), the errors of decimals, maps and unions (1 to 4, 9 to 13, 15), MetadataRefused (22); unknown: the session"] (session; message: pb::DType, other: pb::DType => read(&message, session)? == read(&other, session)?)
    ["message", "MSG", "utf8 { nullable: true }", "a copy of the message"] (message: pb::DType => message.try_clone()?)
    ["message_eq", "MSG MSG", "utf8 {} {}", "whether the two messages are equal"] (message: pb::DType, other: pb::DType => message == other)
    ["read_path", "PART..", r#"path { name: "a" } path { name: "b" }"#, "the path that is read from the message of these parts", "PathPartMissing (36)"] (message: pb::FieldPath => FieldPath::from_proto(&message)?)
    ["path_message", "PART..", r#"path { name: "a" } path {}"#, "a copy of the message of these parts"] (message: pb::FieldPath => message.try_clone()?)
    ["pb_number", "PT", "f64", "the number that messages contain for the primitive type"] (ptype: PType => pb::PType::from(ptype).try_clone()?.number())
    ["pb_from_number", "V", "11", "the primitive type for which messages contain this number, or none"] (number: i32 => pb::PType::from_number(number).map(PType::from))
};

/// What `session` does to a session, and what makes one if there is none.
const CHANGES: &str = "new, register, allow_unknown or drop";
const MAKES: [&str; 3] = ["new", "register", "allow_unknown"];

/// Answers a command on a session with a name.
fn change(call: &mut Call<'_>, word: &str, session: &mut DTypeSession) -> Result<()> {
    // (the answer comes first, so that nothing is changed if there is no memory for it)
    call.say(())?;
    if word == "register" {
        call.line.separate()?;
        let plugin = read_plugin(&mut call.line, "x.tag, x.text, x.word or kept")?;
        call.line.end()?;
        session.try_register(plugin)?;
    } else {
        call.line.end()?;
        match word {
            "allow_unknown" => session.allow_unknown(),
            _ => *session = DTypeSession::new(),
        }
    }
    Ok(())
}

/// Reads a plugin.
fn read_plugin(line: &mut Line<'_>, expected: &'static str) -> Result<Box<dyn ExtDTypePlugin>> {
    let plugin = PLUGINS.into_iter().find(|(name, _)| line.accepts(name));
    plugin.map_or_else(|| Err(line.expected(expected)), |(_, make)| make())
}

/// Reads the session that is the next argument, words or the name of one, and asks it.
pub fn with_session(
    call: &mut Call<'_>,
    console: &Console,
    ask: impl FnOnce(&mut Call<'_>, &DTypeSession) -> Result<()>,
) -> Result<()> {
    call.line.separate()?;
    if call.line.accepts("@") {
        let name = call.line.name()?;
        return ask(call, console.sessions.get(&name)?);
    }
    let mut session = DTypeSession::new();
    loop {
        if call.line.accepts("unknown") {
            session.allow_unknown();
        } else if !call.line.accepts("strict") {
            let expected = "strict, unknown, x.tag, x.text, x.word or kept, or @ and the name of a session";
            session.try_register(read_plugin(&mut call.line, expected)?)?;
        }
        if !call.line.accepts_comma() {
            return ask(call, &session);
        }
    }
}

/// Returns the type that a session reads from a message. The error of an unknown primitive type ends with its number.
fn read(message: &pb::DType, session: &DTypeSession) -> Result<DType> {
    DType::from_proto(message, session).map_err(|error| {
        let is_number = error == VortexError::Message(MessageFault::PrimitiveNumber);
        let number = unknown_number(message).filter(|_| is_number);
        Error::of_subject(error, number.map(|number| format_in!("{number}; U8 to F64 have the numbers 0 to 10")))
    })
}

/// Returns the first number that no primitive type has, in the order in which the library reads the message.
fn unknown_number(message: &pb::DType) -> Option<i32> {
    let in_part = |part: &Option<Box<pb::DType>>| part.as_deref().and_then(unknown_number);
    match message.dtype_type.as_ref()? {
        pb::DtypeType::Primitive(it) => pb::PType::from_number(it.ptype).is_none().then_some(it.ptype),
        pb::DtypeType::List(it) => in_part(&it.element_type),
        pb::DtypeType::FixedSizeList(it) => in_part(&it.element_type),
        pb::DtypeType::Map(it) => in_part(&it.key_type).or_else(|| in_part(&it.value_type)),
        pb::DtypeType::Struct(it) => it.dtypes.iter().find_map(unknown_number),
        pb::DtypeType::Union(it) => it.dtypes.iter().find_map(unknown_number),
        pb::DtypeType::Extension(it) => in_part(&it.storage_dtype),
        _ => None,
    }
}
