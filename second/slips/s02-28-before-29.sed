# file: settings.c
# says: a break of the trailer's layout comes before its version
/^struct verdict verdict_of_file/,/^}/{
/^    if (trailer\[AT_LAST_VERSION\] > OWN_VERSION)/s/> OWN_VERSION)/> OWN_VERSION \&\& trailer_is_good(trailer, length - TRAILER_BYTES))/
}
