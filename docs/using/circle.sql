SELECT a.train, b.train, c.train
FROM trains a, trains b, trains c
WHERE a.destination = b.origin AND b.destination = c.origin AND c.destination = a.origin
ORDER BY a.price + b.price + c.price
