.class public La/Main;
.super La/Base;

.method public tap(Landroid/view/View;)V
    .registers 2
    return-void
.end method
