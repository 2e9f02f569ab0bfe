# What an editor would do: Ben's new part, and his second and his last line.
/^1\.9:/a 3.4: costs := fees + interest + upkeep;
s/^issued .*/issued 1:58, 2:2, 3:4, 4:2/
s/^end(.*/end(ahead, buy, buyer, costs, dear, fees, half, interest, last, mean, out, rented, renter, upkeep)/
