# Holds a box.
.class public La/Shelf;
.super Ljava/lang/Object;

.field public box:La/Box;

.method public constructor <init>()V
    .registers 1
    invoke-direct {p0}, Ljava/lang/Object;-><init>()V
    return-void
.end method
