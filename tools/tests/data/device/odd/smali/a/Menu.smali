.class public La/Menu;
.super Ljava/lang/Object;

.method public tap(Landroid/view/MenuItem;)Z
    .registers 3
    const/4 v0, 0x0
    return v0
.end method
