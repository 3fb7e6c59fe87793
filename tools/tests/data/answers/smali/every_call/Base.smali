.class public La/Base;
.super Landroid/app/Activity;
.method public based(Ljava/lang/Object;)Ljava/lang/Object;
    .registers 2
    return-object p1
.end method
