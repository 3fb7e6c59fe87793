.class public La/q/r/Y;
.super Ljava/lang/Object;
