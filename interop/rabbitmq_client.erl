%% Logins by RabbitMQ's client of AMQP 1.0. Reads a line for each on standard input, with tabs between the words,
%%
%%     PORT  PLAIN | ANONYMOUS  USER  PASSWORD
%%
%% and writes "in" or "out". The word of the command line is the folder of RabbitMQ's plugins.
-mode(compile).

main([Plugins]) ->
    code:add_pathsa(filelib:wildcard(filename:join([Plugins, "*", "ebin"]))),
    logger:set_primary_config(level, none),
    {ok, _} = application:ensure_all_started(amqp10_client),
    io:setopts([binary, {encoding, latin1}]),
    loop().

loop() ->
    case io:get_line("") of
        eof -> ok;
        Line ->
            [Port, Mechanism, User, Password] = binary:split(string:chomp(Line), <<"\t">>, [global]),
            io:format("~s~n", [login(binary_to_integer(Port), sasl(Mechanism, User, Password))]),
            loop()
    end.

sasl(<<"PLAIN">>, User, Password) -> {plain, User, Password};
sasl(<<"ANONYMOUS">>, _, _) -> anon.

%% The server ends the connection after the login. If it rejected the login, the client says so.
login(Port, Sasl) ->
    {ok, Connection} = amqp10_client:open_connection(
        #{address => "127.0.0.1", port => Port, hostname => <<"localhost">>, container_id => <<"interop">>,
          sasl => Sasl, notify => self()}),
    receive
        {amqp10_event, {connection, Connection, {closed, sasl_auth_failure}}} -> "out";
        {amqp10_event, {connection, Connection, Other}} -> io:format(standard_error, "~p~n", [Other]), "in"
    after 10000 -> "none"
    end.
