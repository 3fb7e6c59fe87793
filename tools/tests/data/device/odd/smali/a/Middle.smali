.class public La/Middle;
.super La/Up;
