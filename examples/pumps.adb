with Tank;                         -- how full are two tanks after rain, by power and by hand?
package Upper is new Tank (30);
with Tank;
package Lower is new Tank (10);
with Test_IO, Upper, Lower;
procedure Pumps is
   Rain, Power, Hand : Integer;
begin
   Test_IO.Get (Rain);
   Test_IO.Get (Power);
   Test_IO.Get (Hand);
   Upper.Fill (Rain, Power = 1, Hand = 1);
   Lower.Fill (Rain, Power = 1, Hand = 1);
   Test_IO.Put (Upper.Level);
   Test_IO.Put (Lower.Level);
end Pumps;
