SELECT number FROM large ORDER BY number + number
