SELECT t.train FROM trains AS t
WHERE t.price < 200
