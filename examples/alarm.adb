with Test_IO;                      -- rings where it is hot and armed, or by a button
procedure Alarm is
   Hot, Armed, Button : Integer;
begin
   Test_IO.Get (Hot);
   Test_IO.Get (Armed);
   Test_IO.Get (Button);
   if (Hot = 1 and then Armed = 1) or else Button = 1 then
      Test_IO.Put (1);
   end if;
end Alarm;
