.class public La/p/own/Z;
.super Ljava/lang/Object;
