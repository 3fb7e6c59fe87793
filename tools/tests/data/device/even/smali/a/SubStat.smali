.class public La/SubStat;
.super La/Stat;
