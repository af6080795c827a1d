select R.a, S.c from R, S where R.b = S.b order by R.w + S.w limit 3
