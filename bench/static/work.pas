{ A case with many values, sets, strings, exceptions and a class. }
program work;
{$mode objfpc}{$H+}
uses sysutils, classes;

type
  TCounter = class
    seen: array[0..11] of longint;
    procedure take(const line: string); virtual;
  end;

procedure TCounter.take(const line: string);
var at: integer;
begin
  for at := 1 to length(line) do
    case line[at] of
      'a', 'e', 'i', 'o', 'u': inc(seen[0]);
      'b'..'d': inc(seen[1], at);
      'f': inc(seen[2]);
      'g'..'h': seen[3] := seen[3] xor at;
      'j': dec(seen[4]);
      'k'..'n': seen[5] := seen[5] * 3 + 1;
      'p': inc(seen[6]);
      '0'..'9': inc(seen[7], ord(line[at]) - ord('0'));
      ' ': inc(seen[8]);
      'q'..'t': inc(seen[9]);
      'x': raise exception.create('an x');
    else
      inc(seen[11]);
    end;
end;

var
  line: string;
  lines: TStringList;
  counter: TCounter;
  at: integer;
begin
  lines := TStringList.create;
  counter := TCounter.create;
  while not eof do
  begin
    readln(line);
    try
      counter.take(line);
      lines.add(format('%-20s %d', [line, length(line)]));
    except
      on fault: exception do writeln('told: ', fault.message);
    end;
  end;
  lines.sort;
  for at := 0 to lines.count - 1 do writeln(lines[at]);
  for at := 0 to 11 do write(counter.seen[at], ' ');
  writeln(sqrt(2):0:6);
  halt(lines.count);
end.
