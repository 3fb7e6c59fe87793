.class public La/q/W;
.super Ljava/lang/Object;
