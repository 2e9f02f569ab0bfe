# What an editor would do: comments in front of some lines.
1i # Whether to buy a house or to rent one.
/^1\.10:/i # to buy: the debt month by month
/^1\.32:/i # what the house is worth in the end
/^1\.41:/i # to rent: the rent year by year
/^1\.54:/i # which of the two has more in the end
