SELECT hotel FROM hotels ORDER BY price
