while !last {
    if widow | orphan {
        tight by -0p1;
        line
    } else {
        line
    }
};
blank by 2p6;
page
