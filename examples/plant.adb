with Test_IO;                      -- how many sensors ring, by the mode of the plant
procedure Plant is
   type Mode is (Off, Guarded, Tested);
   type Sensors is array (1 .. 3) of Boolean;
   Now   : Mode := Off;
   Hot   : Sensors := (others => False);
   Rings : Natural := 0;
   N     : Integer;
begin
   Test_IO.Get (N);
   case N is
      when 1 => Now := Guarded;
      when 2 => Now := Tested;
      when others => null;
   end case;
   for I in 1 .. 3 loop
      Test_IO.Get (N);
      Hot (I) := N > 50;
      if Now = Tested or else (Now = Guarded and then Hot (I)) then
         Rings := Rings + 1;
      end if;
   end loop;
   Test_IO.Put (Rings);
end Plant;
