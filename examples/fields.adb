package body Fields is             -- field 0 is the river
   function Is_Wet (Field : Natural) return Boolean is
   begin
      if Field = 0 then
         return True;
      end if;
      return (Open (Field) and then Is_Wet (Field - 1)) or else Rain (Field);
   end Is_Wet;
end Fields;
