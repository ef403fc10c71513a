package body Tank is               -- without power the pump works by hand alone
   procedure Fill (By : Natural; Has_Power, By_Hand : Boolean) is
   begin
      Level := Level + By;
      if (Level > Mark and then Has_Power) or else By_Hand then
         Level := 0;
      end if;
   end Fill;
end Tank;
