.class public La/B;
.super Ljava/lang/Object;
.field public f:Ljava/lang/Object;
