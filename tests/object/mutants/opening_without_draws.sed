# order: Opening takes its draws and adds up the shares without them
s/pair_refresh(&t->mask, w, n, a);/t->mask += n * (n - 1) \/ 2;/
