# file: settings.c
# says: a name is compared with the one just before it only
s/for (unsigned other = 0; other < i; other++)/for (unsigned other = i > 0 ? i - 1 : 0; other < i; other++)/
