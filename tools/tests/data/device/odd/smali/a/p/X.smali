.class public La/p/X;
.super Ljava/lang/Object;
