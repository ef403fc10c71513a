with Test_IO;                      -- counts a number down, at most to 3
procedure Countdown is
   N : Integer;
begin
   Test_IO.Get (N);
   while not (N <= 0) loop
      N := N - 1;
      exit when N = 3;
   end loop;
   Test_IO.Put (N);
end Countdown;
