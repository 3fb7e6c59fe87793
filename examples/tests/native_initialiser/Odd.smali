.class public La/Odd;
.super Ljava/lang/Object;
.method static native constructor <clinit>()V
.end method
