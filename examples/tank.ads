generic                            -- a tank, and a pump that empties it above a mark, or by hand
   Mark : Natural;
package Tank is
   Level : Natural := 0;
   procedure Fill (By : Natural; Has_Power, By_Hand : Boolean);
end Tank;
