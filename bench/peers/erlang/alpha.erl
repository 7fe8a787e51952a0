%% The colouring under synchroniser alpha, a process for each node: what `forestplan plan` writes.
%%
%%   erlc +inline alpha.erl && erl +sbt u -noinput -s alpha main < network.col
%%
%% Signals between two processes keep their order, so a directed link is first in, first out. Mailboxes have no bound,
%% and identifiers any size.
-module(alpha).
-export([main/0]).

-record(n, {id, degree, last, delta, forests,
            peers = {},                  % by port (from 1): {pid, my port there}
            self,                        % vertex, to answer the parent
            roles = [],                  % [{Port, up | down, Forest}]
            colours = [], before = [],   % by forest
            old = 0, merged = 0, chosen = 0, forest = 0, k = 0, j = 0}).

%% The synchroniser. P is the pulse, W the number of payloads without an acknowledgement, Now and Next are the numbers
%% of safes taken of P and P + 1, Box and Early the payloads taken of P and P + 1. A node has said safe if W is 0.

node_start(Vertex, N, Parent) ->
    receive {start, Peers} -> ok end,
    N1 = N#n{self = Vertex, peers = Peers},
    Sent = [{Port, N#n.id} || Port <- lists:seq(1, N#n.degree)],
    Merged = enter(N1, 0, Sent, 0, 0, [], 0),
    Parent ! {done, Vertex, Merged}.

enter(N = #n{last = Last}, Last, [], _, _, _, Closed) ->
    all(N, close),
    closing(N, Closed);
enter(N, P, Sent, Now, Next, Box, Closed) ->
    W = payloads(N#n.peers, P, Sent, 0),
    settle(N, P, W),
    loop(N, P, W, Now, Next, Box, [], Closed).

loop(N = #n{degree = D}, P, 0, D, Next, Box, Early, Closed) ->
    {N1, Sent} = round(N, P + 1, Box),
    enter(N1, P + 1, Sent, Next, 0, Early, Closed);
loop(N, P, W, Now, Next, Box, Early, Closed) ->
    receive
        {safe, P} -> loop(N, P, W, Now + 1, Next, Box, Early, Closed);
        {safe, Q} when Q =:= P + 1 -> loop(N, P, W, Now, Next + 1, Box, Early, Closed);
        {ack, P} ->
            settle(N, P, W - 1),
            loop(N, P, W - 1, Now, Next, Box, Early, Closed);
        {payload, P, Port, X} ->
            ack(N, Port, P),
            loop(N, P, W, Now, Next, [{Port, X} | Box], Early, Closed);
        {payload, Q, Port, X} when Q =:= P + 1 ->
            ack(N, Port, Q),
            loop(N, P, W, Now, Next, Box, [{Port, X} | Early], Closed);
        close -> loop(N, P, W, Now, Next, Box, Early, Closed + 1)
    end.

closing(#n{degree = D, merged = Merged}, D) -> Merged;
closing(N, Closed) -> receive close -> closing(N, Closed + 1) end.

settle(N, P, 0) -> all(N, {safe, P});
settle(_, _, _) -> ok.

ack(N, Port, Q) ->
    {Pid, _} = element(Port, N#n.peers),
    Pid ! {ack, Q}.

payloads(_, _, [], W) -> W;
payloads(Peers, P, [{Port, X} | Sent], W) ->
    {Pid, Back} = element(Port, Peers),
    Pid ! {payload, P, Back, X},
    payloads(Peers, P, Sent, W + 1).

all(#n{peers = Peers, degree = D}, Wire) -> all(Peers, D, Wire).

all(_, 0, _) -> ok;
all(Peers, Port, Wire) ->
    {Pid, _} = element(Port, Peers),
    Pid ! Wire,
    all(Peers, Port - 1, Wire).

%% The colouring: what a node does at a pulse with the payloads that came, and what it sends.

round(N, 1, Box) ->
    Higher = lists:sort([{Id, Port} || {Port, Id} <- Box, Id > N#n.id]),
    Ups = lists:zipwith(fun(F, {_, Port}) -> {Port, up, F} end, lists:seq(0, length(Higher) - 1), Higher),
    {N#n{roles = Ups}, [{Port, F} || {Port, up, F} <- Ups]};
round(N, 2, Box) ->
    sending_colours(N#n{roles = N#n.roles ++ [{Port, down, F} || {Port, F} <- Box],
                        colours = lists:duplicate(N#n.forests, N#n.id)});
round(N, P, Box) when P =< 12 ->
    Of = maps:from_list(Box),
    Parents = maps:from_list([{F, maps:get(Port, Of)} || {Port, up, F} <- N#n.roles]),
    Each = lists:zip(lists:seq(0, N#n.forests - 1), N#n.colours),
    Pairs = [{C, maps:get(F, Parents, none)} || {F, C} <- Each],
    N1 = work(N, P, Pairs),
    if P =:= 12 -> {N1, []}; true -> sending_colours(N1) end;
round(N, _, Box) ->
    merge(N, Box).

sending_colours(N) ->
    Colours = list_to_tuple(N#n.colours),
    {N, [{Port, element(F + 1, Colours)} || {Port, down, F} <- N#n.roles]}.

work(N, P, Pairs) when P =< 6 -> N#n{colours = [bit_step(C, Parent) || {C, Parent} <- Pairs]};
work(N, P, Pairs) when P rem 2 =:= 1 ->
    N#n{before = N#n.colours,
        colours = [if Parent =:= none -> least(C, C); true -> Parent end || {C, Parent} <- Pairs]};
work(N, P, Pairs) ->
    X = 9 - P div 2,
    N#n{colours = lists:zipwith(fun({C, Parent}, B) when C =:= X -> least(B, Parent);
                                   ({C, _}, _) -> C end, Pairs, N#n.before)}.

bit_step(C, none) -> C band 1;
bit_step(C, Parent) -> bit_step(C, C bxor Parent, 0).

bit_step(C, Differ, I) when Differ band 1 =:= 1 -> 2 * I + (C bsr I) band 1;
bit_step(C, Differ, I) -> bit_step(C, Differ bsr 1, I + 1).

least(A, B) -> hd([0, 1, 2] -- [A, B]).

merge(N0, Box) ->
    N = #n{colours = [Three | _], forest = Forest, k = K, j = J, delta = Delta} =
        if N0#n.k =:= 0, N0#n.j =:= 0 -> N0#n{old = N0#n.merged, chosen = 0}; true -> N0 end,
    Chosen = choose(Box, N#n.chosen),
    {Merged, Sent} =
        if K =:= Three, J =:= N#n.old, K =:= 2, J =:= Delta ->
                {free(Chosen, 0), []};
           K =:= Three, J =:= N#n.old ->
                C = free(Chosen, 0),
                {C, [{Port, C} || {Port, _, F} <- N#n.roles, F =< Forest]};
           true ->
                {N#n.merged, []}
        end,
    N1 = N#n{chosen = Chosen, merged = Merged},
    N2 =
        if J < Delta -> N1#n{j = J + 1};
           K < 2 -> N1#n{j = 0, k = K + 1};
           true -> N1#n{j = 0, k = 0, forest = Forest + 1, colours = tl(N#n.colours)}
        end,
    {N2, Sent}.

choose([], Chosen) -> Chosen;
choose([{_, C} | Box], Chosen) -> choose(Box, Chosen bor (1 bsl C)).

free(Chosen, C) when (Chosen bsr C) band 1 =:= 0 -> C;
free(Chosen, C) -> free(Chosen, C + 1).

%% The network, and the run.

read() ->
    {ok, Text} = file:read_file("/dev/stdin"),
    Spaces = [<<" ">>, <<"\t">>, <<"\r">>],
    Lines = [binary:split(Line, Spaces, [global, trim_all]) || Line <- binary:split(Text, <<"\n">>, [global])],
    [Nodes] = [binary_to_integer(Count) || [<<"p">>, _, Count | _] <- Lines],
    Given = maps:from_list([{binary_to_integer(V), binary_to_integer(Id)} || [<<"i">>, V, Id | _] <- Lines]),
    Pairs = [{binary_to_integer(V), binary_to_integer(W)} || [<<"e">>, V, W | _] <- Lines],
    Arcs = lists:usort(Pairs ++ [{W, V} || {V, W} <- Pairs]),
    Near = lists:foldr(fun({V, W}, M) -> maps:update_with(V, fun(Ws) -> [W | Ws] end, [W], M) end, #{}, Arcs),
    [{V, maps:get(V, Given, V), maps:get(V, Near, [])} || V <- lists:seq(1, Nodes)].

main() ->
    Net = read(),
    Ids = maps:from_list([{V, Id} || {V, Id, _} <- Net]),
    Delta = lists:max([0 | [length(Ws) || {_, _, Ws} <- Net]]),
    Forests = lists:max([0 | [length([W || W <- Ws, maps:get(W, Ids) > Id]) || {_, Id, Ws} <- Net]]),
    Parent = self(),
    Start = fun(V, Id, Ws) ->
                    N = #n{id = Id, degree = length(Ws), delta = Delta, forests = Forests,
                           last = 12 + 3 * Forests * (Delta + 1)},
                    spawn_link(fun() -> node_start(V, N, Parent) end)
            end,
    Pids = maps:from_list([{V, Start(V, Id, Ws)} || {V, Id, Ws} <- Net]),
    Back = maps:from_list([{{V, W}, Port}
                           || {V, _, Ws} <- Net, {Port, W} <- lists:zip(lists:seq(1, length(Ws)), Ws)]),
    Peers = fun(V, Ws) -> list_to_tuple([{maps:get(W, Pids), maps:get({W, V}, Back)} || W <- Ws]) end,
    [maps:get(V, Pids) ! {start, Peers(V, Ws)} || {V, _, Ws} <- Net],
    Plan = [receive {done, V, C} -> io_lib:format("~b ~b~n", [V, C + 1]) end || {V, _, _} <- Net],
    io:put_chars(["plan\n" | Plan]),
    halt().
