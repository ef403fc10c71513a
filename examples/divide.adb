with Test_IO;

procedure Divide is
   Dividend : Integer := 5;
   Divisor : Integer;
begin
   Test_IO.Get (Divisor);
   Test_IO.Put (Dividend / Divisor);
   Test_IO.Put (Dividend rem Divisor);
end Divide;
