-- A case with many values, exceptions, records with discriminants, and the packages of the library for text.
with Ada.Command_Line;
with Ada.Text_IO;

procedure Work is
   type Marks is array (0 .. 9) of Natural;
   Stop : exception;
   Seen : Marks := (others => 0);
   Lines : Natural := 0;

   procedure Take (Letter : Character) is
      Code : constant Natural := Character'Pos (Letter);
   begin
      case Code mod 10 is
         when 0 => Seen (0) := Seen (0) + 1;
         when 1 => Seen (1) := Seen (1) + Code;
         when 2 => Seen (2) := (Seen (2) * 3) mod 1009;
         when 3 => Seen (3) := Natural'Max (Seen (3), Code);
         when 4 => Seen (4) := abs (Seen (4) - Code);
         when 5 => Seen (5) := Seen (5) + 2;
         when 6 => Seen (6) := Seen (6) mod 7 + 1;
         when 7 => raise Stop with "stopped";
         when others => Seen (9) := Seen (9) + 1;
      end case;
   end Take;
begin
   while not Ada.Text_IO.End_Of_File loop
      declare
         Line : constant String := Ada.Text_IO.Get_Line;
      begin
         Lines := Lines + 1;
         for Letter of Line loop
            Take (Letter);
         end loop;
         Ada.Text_IO.Put_Line (Line & Natural'Image (Line'Length));
      exception
         when Stop => Ada.Text_IO.Put_Line ("told:" & Natural'Image (Lines));
      end;
   end loop;
   for Number of Seen loop
      Ada.Text_IO.Put (Natural'Image (Number));
   end loop;
   Ada.Text_IO.New_Line;
   Ada.Command_Line.Set_Exit_Status (Ada.Command_Line.Exit_Status (Seen (9) mod 256));
end Work;
