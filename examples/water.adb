with Test_IO, Fields;              -- which gates are open, where it rains: has the last field water?
procedure Water is
   N : Integer;
begin
   for Field in 1 .. 3 loop
      Test_IO.Get (N);
      Fields.Open (Field) := N = 1;
   end loop;
   Test_IO.Get (N);
   Fields.Rain (N) := True;
   if Fields.Is_Wet (3) then
      Test_IO.Put (3);
   end if;
end Water;
