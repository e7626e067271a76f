begin writeln('hi'); end.
