with Test_IO;                      -- heats below a limit, and minds a sensor that is broken
procedure Heater is
   Sensor, Limit : Integer;
begin
   Test_IO.Get (Sensor);
   Test_IO.Get (Limit);
   if Sensor < Limit then
      Test_IO.Put (1);
   end if;
   pragma Annotate (Xcov, Exempt_On, "no test breaks the sensor");
   if Sensor < -40 or else Sensor > 125 then
      Test_IO.Put (-1);
   end if;
   pragma Annotate (Xcov, Exempt_Off);
end Heater;
