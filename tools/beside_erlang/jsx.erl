%% Writes terms as JSON, as far as encoders by JER call for it: a stand-in for the library of this name.
-module(jsx).
-export([encode/1, decode/2]).

encode(Term) -> iolist_to_binary(text(Term)).

decode(_, _) -> error(not_needed).

text(null) -> "null";
text(true) -> "true";
text(false) -> "false";
text(Name) when is_atom(Name) -> quoted(atom_to_binary(Name));
text(Number) when is_integer(Number) -> integer_to_list(Number);
text(Octets) when is_binary(Octets) -> quoted(Octets);
text([{}]) -> "{}";
text([{_, _} | _] = Members) -> object(Members);
text(Members) when is_map(Members) -> object(maps:to_list(Members));
text(Elements) when is_list(Elements) -> ["[", lists:join(",", [text(Element) || Element <- Elements]), "]"].

object(Members) -> ["{", lists:join(",", [[name(Name), ":", text(Value)] || {Name, Value} <- Members]), "}"].

name(Name) when is_atom(Name) -> quoted(atom_to_binary(Name));
name(Name) -> quoted(Name).

quoted(Octets) -> ["\"", [escaped(Octet) || <<Octet>> <= Octets], "\""].

escaped($") -> "\\\"";
escaped($\\) -> "\\\\";
escaped(Octet) when Octet < 32 -> io_lib:format("\\u~4.16.0B", [Octet]);
escaped(Octet) -> Octet.
