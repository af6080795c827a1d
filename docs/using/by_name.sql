SELECT t.train FROM trains AS t ORDER BY t.train
