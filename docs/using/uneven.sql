SELECT train FROM trains
UNION ALL
SELECT city, hotel FROM hotels
