package Fields is                  -- fields in a row, each with a gate to the one before
   type Marks is array (1 .. 3) of Boolean;
   Open : Marks := (others => True);
   Rain : Marks := (others => False);
   function Is_Wet (Field : Natural) return Boolean;
end Fields;
