# Its private method does not override the one of Base, which is what the system calls.
.class public La/Main;
.super La/Base;

.method public constructor <init>()V
    .registers 1
    invoke-direct {p0}, La/Base;-><init>()V
    return-void
.end method

.method private onCreate(Landroid/os/Bundle;)V
    .registers 2
    return-void
.end method
