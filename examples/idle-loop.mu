while note {
    if figure { foot by 0p9 } else { skip }
};
page
