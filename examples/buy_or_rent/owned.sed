# What an editor would do: Dan's new lines, and a name more at the end.
/^1\.37:/a owned := value - debt;   # what of the house is the buyer's\
if owned < 0 then owned := 0; fi
s/out, rented/out, owned, rented/
