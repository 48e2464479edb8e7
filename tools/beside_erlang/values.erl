%% Writes random values of the types of four modules in JSON, as asn1ct encodes them by JER: lines in a file for each type.
-module(values).
-export([print/1]).

print(Count) ->
    rand:seed(exsss, 1),
    lists:foreach(fun(Name) -> print(Name, Count) end, ['Report', 'Ticket', 'Call', 'Lists']).

print(Name, Count) ->
    ok = file:write_file(atom_to_list(Name) ++ ".values", [line(Name) || _ <- lists:seq(1, Count)]).

line(Name) ->
    {ok, Json} = Name:encode(Name, value(Name)),
    [Json, "\n"].

value('Report') ->
    some(#{id => number(), active => flag()}, [
        {level, fun() -> one_of([low, normal, high, urgent]) end},
        {retries, fun number/0},
        {note, fun words/0},
        {nothing, fun() -> 'NULL' end}
    ]);
value('Ticket') ->
    some(
        #{
            key => rand:bytes(rand:uniform(9) - 1),
            flags => bits(rand:uniform(12) - 1),
            mask => bits(12),
            realm => letters("ABC abc019'()+,-./:=?"),
            kind => {2, rand:uniform(40) - 1, rand:uniform(1000000)},
            until => time("20") ++ "Z"
        },
        [{host, fun() -> letters("abc \t\"\\~") end}, {from, fun() -> time("") ++ "Z" end}]
    );
value('Call') ->
    one_of([
        fun() -> {ring, ring(3)} end,
        fun() -> {speak, #{words => words(), louder => flag()}} end,
        fun() -> {'end', 'NULL'} end,
        fun() -> {hold, rand:uniform(3601) - 1} end
    ]);
value('Lists') ->
    some(#{rows => many(fun row/0), numbers => many(fun number/0), names => many(fun words/0)}, [{tree, fun() -> tree(4) end}]).

ring(Depth) ->
    one_of([
        fun() -> {number, letters("0123456789 ")} end,
        fun() -> {person, {name, letters("abcZ ~!")}} end,
        fun() -> {person, {badge, rand:uniform(65535)}} end
        | [fun() -> {group, many(fun() -> ring(Depth - 1) end)} end || Depth > 0]
    ]).

row() -> many(fun() -> some(#{a => number()}, [{b, fun flag/0}]) end).

tree(0) -> #{value => number(), branches => []};
tree(Depth) -> #{value => number(), branches => many(fun() -> tree(Depth - 1) end)}.

%% The members, with some of the others.
some(Members, Others) ->
    lists:foldl(fun({Name, Make}, Made) -> case flag() of true -> Made#{Name => Make()}; false -> Made end end, Members, Others).

one_of(Items) ->
    case lists:nth(rand:uniform(length(Items)), Items) of
        Make when is_function(Make) -> Make();
        Item -> Item
    end.

many(Make) -> [Make() || _ <- lists:seq(2, rand:uniform(4))].
flag() -> rand:uniform(2) =:= 1.
number() -> one_of([0, 3, -1, rand:uniform(2000) - 1000, rand:uniform(1 bsl 60) - (1 bsl 59), -(1 bsl 63), (1 bsl 64) - 1]).
bits(Count) -> << <<(rand:uniform(2) - 1):1>> || _ <- lists:seq(1, Count) >>.
letters(Alphabet) -> [lists:nth(rand:uniform(length(Alphabet)), Alphabet) || _ <- lists:seq(2, rand:uniform(9))].
words() -> unicode:characters_to_binary(letters("abc \"\\/\n\té漢😀")).
time(Century) -> Century ++ lists:flatten([io_lib:format("~2..0B", [Number]) || Number <- [rand:uniform(99), rand:uniform(12), rand:uniform(28), rand:uniform(23), rand:uniform(59), rand:uniform(59)]]).
